"""Whether a release may go ahead."""
