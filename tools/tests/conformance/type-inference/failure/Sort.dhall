Sort
