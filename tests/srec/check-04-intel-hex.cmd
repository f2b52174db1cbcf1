check ihex.hex
