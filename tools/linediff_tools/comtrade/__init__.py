"""Records of IEEE C37.111 (COMTRADE), revisions 1999 and 2013: a configuration `.cfg` beside its data `.dat`."""
