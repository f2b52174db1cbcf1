patch --symbols gone missing.sheet
