// A brace too many.
workflow { } }
