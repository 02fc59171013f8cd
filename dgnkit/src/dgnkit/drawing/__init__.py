"""A drawing: what listings and bytes say of it, where its elements lie, and what of it is chosen, broken or mended."""
