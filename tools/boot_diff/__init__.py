"""What differs between two boots, in the terms of a boot. `boot_diff.boots` has the way in."""
