Type → Type
