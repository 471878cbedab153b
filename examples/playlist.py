songs = ["So What", "Blue in Green"]
lengths = [len(song) for song in songs]
