from dirgwako import Counter, Histogram, generate_latest

visits = Counter("visits", "Visits so far.", ["page"])
took = Histogram("answer_seconds", "How long answers took.")
with took.time():
    visits.labels("/").inc()
print(generate_latest().decode(), end="")
