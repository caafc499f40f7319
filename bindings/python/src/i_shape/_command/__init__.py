"""What ``python -m i_shape`` is made of."""
