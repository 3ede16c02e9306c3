from silo import Silo

with Silo("shop:1000:4", program="tools/slow-silo") as silo:
    web = silo.client("shop/web")
    for user in ("ann", "bob", "ann"):
        print(user, web.grain(f"counter/shop:{user}").add(by=1))
