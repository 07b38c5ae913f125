"""What more than one script of this folder, or of tests/, imports."""
