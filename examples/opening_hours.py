opens = 8
closes = 18
if opens:
    break
