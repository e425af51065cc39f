"""What a script of nodes prints, by the rules of docs/ and by nothing of the program: over the engine of cells."""
