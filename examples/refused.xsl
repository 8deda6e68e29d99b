<!-- Refused before it runs: the expression lacks a bracket. -->
<xsl:stylesheet version="1.0" xmlns:xsl="http://www.w3.org/1999/XSL/Transform">
  <xsl:template match="/"><o><xsl:value-of select="sum(//price"/></o></xsl:template>
</xsl:stylesheet>
