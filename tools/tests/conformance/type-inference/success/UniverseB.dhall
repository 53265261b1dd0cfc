Kind
