"""slo-try: a changed folder tried over an office's past before it is applied."""
