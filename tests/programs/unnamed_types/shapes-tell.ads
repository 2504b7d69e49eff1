procedure Shapes.Tell;
