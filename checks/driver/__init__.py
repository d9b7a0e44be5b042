"""Steps everything that can come about of the drivers at one instance, beside the network of checks/network."""
