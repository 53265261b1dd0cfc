Natural
