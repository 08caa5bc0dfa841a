"""The front end of cardgrade: it makes the bytes of cards and vectors, has the proved program or the archive grade them, and says what came of it."""
