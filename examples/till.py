VAT = 20


def total(price):
    return price + price * VAT // 100


receipt = total(250)
