patch --symbols - --over - fix.sheet
