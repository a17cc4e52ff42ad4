"""Programs and images to ask about, and what the stored ones are made of."""
