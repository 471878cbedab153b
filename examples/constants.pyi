GRAVITY: float
HEIGHT: int
IS_MANNED: bool
MAGIC: bytes
SENSORS: int
STATION: str
backup: int
calibrated: int
