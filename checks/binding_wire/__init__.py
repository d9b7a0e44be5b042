"""osb_binding_wire, compared with Python's json and urllib."""
