"""What a datagram says of one flow, before it is counted. None is what it doesn't say."""

from dataclasses import dataclass
from typing import Optional, Tuple

Address = Tuple[int, int]


@dataclass
class Record:
    """One record: bytes, packets, what keys are made of, and what its sampling rate is found by."""

    exporter: Address
    source_id: int
    bytes: int = 0
    packets: int = 0
    source_address: Optional[Address] = None
    destination_address: Optional[Address] = None
    next_hop: Optional[Address] = None
    source_mask: Optional[int] = None
    destination_mask: Optional[int] = None
    source_port: Optional[int] = None
    destination_port: Optional[int] = None
    source_system: Optional[int] = None
    destination_system: Optional[int] = None
    source_mac: Optional[int] = None
    destination_mac: Optional[int] = None
    input_interface: Optional[int] = None
    output_interface: Optional[int] = None
    protocol: Optional[int] = None
    type_of_service: Optional[int] = None
    vlan: Optional[int] = None
    own_rate: Optional[int] = None
    learned_rate: Optional[int] = None
    header_rate: Optional[int] = None
