dishes = ["soup", "pie"
price = 12
