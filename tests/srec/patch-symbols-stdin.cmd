patch --symbols - --entry 0 fix.sheet
