"""Questions of state: what `status` asks the supervisors of a group, from any machine that may."""
