SHOP = "Leaf and Bean"
OPEN = True
TABLES = 12
TAX_CODE = None

title = SHOP
seats = TABLES
seats = "by the window"
booked = OPEN
