"""The past of an office: its entries, fronts of them, and an office of one's own over them."""
