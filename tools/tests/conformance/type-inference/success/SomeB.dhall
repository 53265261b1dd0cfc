Optional Natural
