"""What the tools share: rows, settings, records, scenarios, reports and verdicts. It proves nothing and decides nothing."""
