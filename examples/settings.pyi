OPEN: bool
SHOP: str
TABLES: int
TAX_CODE: None
booked: bool
seats: str
title: str
