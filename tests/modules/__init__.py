"""What the scripts of this folder import."""
