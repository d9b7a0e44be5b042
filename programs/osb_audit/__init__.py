"""Compares the journals of brokers and platforms with the proved model of both (docs/audit.md)."""
