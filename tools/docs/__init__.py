"""What documents and heads of files say, compared with the code."""
