"""The feed: sample rows from Prometheus and ClickHouse, exactly, with revisions."""
