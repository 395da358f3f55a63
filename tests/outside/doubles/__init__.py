"""What stands in for a part of the product, or for what is round it."""
