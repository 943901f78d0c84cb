"""What tests/renew_at uses: supervisors that renew their session, and are killed as they do."""
