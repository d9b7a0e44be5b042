"""A model of an instance and its bindings, and everything that can come about of them."""
