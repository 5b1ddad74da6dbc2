"""Cases by theme. A theme makes a case, a tool with its words and its folder, from one generator of random numbers."""
