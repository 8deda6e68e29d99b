<!-- The average price, where it is a whole number: other numbers refuse the run. -->
<xsl:stylesheet version="1.0" xmlns:xsl="http://www.w3.org/1999/XSL/Transform">
  <xsl:template match="/">
    <average><xsl:value-of select="sum(//price) div count(//price)"/></average>
  </xsl:template>
</xsl:stylesheet>
