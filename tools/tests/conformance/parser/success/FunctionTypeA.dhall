Bool → Natural
