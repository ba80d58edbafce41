"""slo-tune: which alert would have told best of known incidents, and which target a past kept."""
