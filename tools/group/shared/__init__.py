"""What the scripts for a group have in common. What is about one matter has a folder."""
