"""The modules of tools/reference: they read sources, and write pages of them."""
