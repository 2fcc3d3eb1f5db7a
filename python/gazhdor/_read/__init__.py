"""What is read: blocks, messages as values, columns, and what is made of them."""
