  void outgoing_send({types}) { TTCN_error("Port %s of type {port_type} has no driver for the system.", port_name); }
