"""The log of a device's boot: read, followed with the model, and compared with it."""
