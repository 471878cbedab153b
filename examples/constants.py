STATION = "Brocken"
HEIGHT = 1141
GRAVITY = 9.80665
MAGIC = b"WX" b"1"
SENSORS = (4)
IS_MANNED = False

calibrated = None
calibrated = HEIGHT; backup = calibrated
