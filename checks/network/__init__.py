"""Compares osb_network, and the records and holdings of libosb, with a second model of them."""
