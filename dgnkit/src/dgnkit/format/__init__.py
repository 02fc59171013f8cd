"""What stands in the bytes of a design file and of a patch file (docs/FORMAT.md): numbers, types, units, elements."""
