"""A model of the updates of an instance, and everything that can come about of them."""
