class A
  # @type var x: Integer
  def f
    nil
  end
end
